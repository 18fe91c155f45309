      PROGRAM SUMS
C     A SUM OVER A TABLE
      PARAMETER (N=1000000)
      INTEGER A(N), TOTAL
      DO I = 1, N
        A(I) = MOD(I,1000)
      END DO
      TOTAL = 0
      DO K = 1, 60
        DO I = 1, N
          TOTAL = TOTAL+MOD(A(I)*K,7)
        END DO
      END DO
      PRINT *, TOTAL
      END
