      PROGRAM TURN
C     ONE ROW UP, ONE COLUMN TO THE RIGHT.
      INTEGER A(3,4)
      SAVE A
      DO 10 I = 1, 3
      DO 10 J = 1, 4
   10 A(I,J) = J
      DO 20 I = 2, 3
      DO 20 J = 1, 3
   20 A(I,J) = A(I-1,J+1)+10
      END
