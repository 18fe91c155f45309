      PROGRAM LU
C     A MATRIX AS THE PRODUCT OF TWO TRIANGLES; ITS ROWS ARE PENDING
      PARAMETER (N=1000)
      INTEGER A(N,N)
      DO J = 1, N
        DO I = 1, N
          A(I,J) = MIN(I,J)
        END DO
      END DO
      DO K = 1, N-1
        DO I = K+1, N
          A(I,K) = A(I,K)/A(K,K)
        END DO
        DO J = K+1, N
          DO I = K+1, N
            A(I,J) = A(I,J)-A(I,K)*A(K,J)
          END DO
        END DO
      END DO
      PRINT *, A(1,1), A(N,N)
      END
