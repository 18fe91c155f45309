      PROGRAM OFTEN
C     A SHORT PARALLEL LOOP IN A LONG SEQUENTIAL ONE
      PARAMETER (N=100)
      INTEGER A(N)
      DO I = 1, N
        A(I) = I
      END DO
      DO K = 1, 200000
        DO I = 1, N
          A(I) = MOD(A(I)*7+K,1009)
        END DO
      END DO
      PRINT *, A(1), A(N)
      END
