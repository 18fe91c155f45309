      PROGRAM OUTWRD
C     EACH ROW FROM THE ONE ABOVE IT
      PARAMETER (M=1000, N=1000)
      INTEGER A(M,N)
      DO J = 1, N
        DO I = 1, M
          A(I,J) = I+J
        END DO
      END DO
      DO K = 1, 20
        DO I = 2, M
          DO J = 1, N
            A(I,J) = MOD(A(I-1,J)+A(I,J)+K,1000)
          END DO
        END DO
      END DO
      PRINT *, A(M,1), A(M,N)
      END
