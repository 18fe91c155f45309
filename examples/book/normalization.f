      PROGRAM STEPS
C     THREE BY THREE: THE DISTANCE COUNTS ITERATIONS, AND ONE BACK HITS
C     NOTHING.
      INTEGER A(21), B(21)
      SAVE K, L
      DO 10 I = 1, 21
      A(I) = 1
   10 B(I) = 1
      DO 20 I = 6, 21, 3
   20 A(I) = A(I-3)+1
      DO 30 I = 6, 21, 3
   30 B(I) = B(I-1)+1
      K = A(21)
      L = B(21)
      END
