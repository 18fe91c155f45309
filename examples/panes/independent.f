      PROGRAM R1
      INTEGER A(10)
      SAVE A
      DO 10 I=2,10
   10 A(I)=A(I)+1
      END
