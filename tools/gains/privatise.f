      PROGRAM PRIVAT
C     A SCALAR THAT EACH ITERATION ASSIGNS BEFORE IT READS IT
      PARAMETER (N=1000000)
      INTEGER A(N)
      DO I = 1, N
        A(I) = MOD(I,1000)
      END DO
      DO K = 1, 30
        DO I = 1, N
          L = A(I)*7+K
          A(I) = MOD(L*L,1009)
        END DO
      END DO
      PRINT *, A(1), A(N)
      END
