      PROGRAM SWAP
      INTEGER A(10),B(10)
      DO 10 I=1,10
      IT=A(I)
      A(I)=B(I)
   10 B(I)=IT
      END
