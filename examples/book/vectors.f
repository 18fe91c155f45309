      PROGRAM VECTOR
C     TWO ROWS UP, ONE COLUMN TO THE RIGHT.
      INTEGER A(5,4)
      SAVE K
      DO 10 I = 1, 5
      DO 10 J = 1, 4
   10 A(I,J) = I+J
      DO 20 I = 3, 5
      DO 20 J = 1, 3
   20 A(I,J) = A(I-2,J+1)+10
      K = A(5,2)
      END
