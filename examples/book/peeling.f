      PROGRAM PEEL
C     ITERATION 1 ALONE WRITES WHAT ALL OTHERS READ.
      INTEGER A(6), B(6)
      SAVE B
      DO 10 I = 1, 6
      A(I) = 2*I
   10 B(I) = A(1)+I
      END
