      PROGRAM EACH
C     EACH SUBSCRIPT TELLS OF ONE LOOP.
      INTEGER A(4,4)
      SAVE K
      DO 10 I = 1, 4
      DO 10 J = 1, 4
   10 A(I,J) = I
      DO 20 I = 2, 4
      DO 20 J = 2, 4
   20 A(I,J) = A(I-1,J-1)+10
      K = A(4,4)
      END
