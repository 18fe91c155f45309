      PROGRAM DELTA
C     ONE ROW DOWN WANTS ONE ITERATION, TWO COLUMNS ON WANT TWO.
      INTEGER A(6,6)
      SAVE K
      DO 10 I = 1, 6
      DO 10 J = 1, 6
   10 A(I,J) = 10*I+J
      DO 20 I = 1, 4
   20 A(I+1,I+2) = A(I,I)
      K = A(5,6)
      END
