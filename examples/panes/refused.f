      PROGRAM TWICE
      INTEGER A(10)
      DO 10 I=1,10
      I=I+1
   10 A(I)=0
      END
