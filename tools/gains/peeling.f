      PROGRAM PEEL
C     ONLY THE LAST ITERATION IS IN THE WAY
      PARAMETER (N=1000000)
      INTEGER A(N), B(N)
      DO I = 1, N
        A(I) = I
      END DO
      DO K = 1, 30
        DO I = 1, N
          B(I) = MOD(A(N)-A(I)+K,1009)
          A(I) = MOD(A(I)*7+K,1009)
        END DO
      END DO
      PRINT *, A(1), B(N)
      END
