      PROGRAM PRODCT
C     THE PRODUCT C OF THE MATRICES A AND B
      PARAMETER (N=1000)
      INTEGER A(N,N), B(N,N), C(N,N)
      DO J = 1, N
        DO I = 1, N
          A(I,J) = MOD(I+J,7)
          B(I,J) = MOD(I-J,5)
          C(I,J) = 0
        END DO
      END DO
      DO K = 1, N
        DO I = 1, N
          DO J = 1, N
            C(I,J) = C(I,J)+A(I,K)*B(K,J)
          END DO
        END DO
      END DO
      PRINT *, C(1,1), C(N,N)
      END
