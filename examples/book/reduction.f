      PROGRAM REDUCE
C     A SUM OF TWELVE; THEN THREE SUMS OF FOUR, AND A SUM OF THESE.
      INTEGER A(12), P(3)
      SAVE M
      DO 10 I = 1, 12
   10 A(I) = I
      M = 0
      DO 20 I = 1, 12
   20 M = M+A(I)
      END
