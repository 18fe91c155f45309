      PROGRAM STRIPS
C     A LOOP THAT CARRIES NOTHING, IN STRIPS OF A HUNDRED
      PARAMETER (N=1000000)
      INTEGER A(N)
      DO I = 1, N
        A(I) = I
      END DO
      DO K = 1, 30
        DO I = 1, N
          A(I) = MOD(A(I)*7+K,1009)
        END DO
      END DO
      PRINT *, A(1), A(N)
      END
