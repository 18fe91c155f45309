      PROGRAM STAIRS
C The heights of the steps of a stair, how high each step is
C above the floor, and what its front costs
      INTEGER STEP(8), HIGH(0:8), COST(8)
      SAVE HIGH, COST
      HIGH(0) = 0
      DO 10 I = 1, 8
      STEP(I) = 15+MOD(3*I,4)
      HIGH(I) = HIGH(I-1)+STEP(I)
   10 COST(I) = 2*STEP(I)+5
      END
