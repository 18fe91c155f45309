      PROGRAM EVEN
C     EVEN PLACES ARE WRITTEN, ODD ONES READ.
      INTEGER A(2:25,4)
      SAVE K
      DO 10 J = 1, 4
      DO 10 I = 2, 25
   10 A(I,J) = I
      DO 20 I = 1, 4
      DO 20 J = 1, 4
   20 A(2*I+4*J,J) = A(2*I+4*J+1,J)
      K = A(24,4)
      END
