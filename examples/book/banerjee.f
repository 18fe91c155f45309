      PROGRAM BOUNDS
C     PLACES 2 TO 8 ARE WRITTEN, PLACES 9 TO 15 READ.
      INTEGER A(2:15,4)
      SAVE K
      DO 10 J = 1, 4
      DO 10 I = 2, 15
   10 A(I,J) = I
      DO 20 I = 1, 4
      DO 20 J = 1, 4
   20 A(I+J,J) = A(I+J+7,J)
      K = A(8,4)
      END
