      PROGRAM FORWRD
C     THE SCALAR HIDES WHICH ELEMENT IS MEANT.
      INTEGER A(6)
      SAVE A
      DO 10 I = 1, 6
   10 A(I) = I
      DO 20 I = 1, 5
      K = I+1
   20 A(K) = A(K)*10
      END
