C     A LINEAR SYSTEM BY GAUSS WITH PARTIAL PIVOTING, COLUMN BY COLUMN.
      PROGRAM LINPAK
      INTEGER N, I, J
      PARAMETER (N = 60)
      DOUBLE PRECISION A(N,N), B(N)
      INTEGER IPVT(N), INFO
      DO 20 J = 1, N                       != parallel
        B(J) = J
        DO 10 I = 1, N                     != parallel
          A(I,J) = MOD(3*I + 7*J, 17)
   10   CONTINUE
        A(J,J) = A(J,J) + 40
   20 CONTINUE
      CALL DGEFA(A, N, N, IPVT, INFO)
      CALL DGESL(A, N, N, IPVT, B)
      WRITE (*, '(5F12.8)') B, DBLE(INFO)
      END
      SUBROUTINE DGEFA(A, LDA, N, IPVT, INFO)
      INTEGER LDA, N, IPVT(*), INFO
      DOUBLE PRECISION A(LDA,*), T
      INTEGER I, J, K, L
      INFO = 0
      DO 60 K = 1, N-1                     != carries A, INFO
        L = K
        DO 10 I = K+1, N                   != carries L
          IF (DABS(A(I,K)) .GT. DABS(A(L,K))) L = I
   10   CONTINUE
        IPVT(K) = L
        IF (A(L,K) .EQ. 0.0D0) GO TO 50
        IF (L .EQ. K) GO TO 20
        T = A(L,K)
        A(L,K) = A(K,K)
        A(K,K) = T
   20   CONTINUE
        T = -1.0D0/A(K,K)
        DO 30 I = K+1, N                   != parallel
          A(I,K) = T*A(I,K)
   30   CONTINUE
        DO 45 J = K+1, N                   != parallel
          T = A(L,J)
          IF (L .NE. K) THEN
            A(L,J) = A(K,J)
            A(K,J) = T
          END IF
          DO 40 I = K+1, N                 != parallel
            A(I,J) = A(I,J) + T*A(I,K)
   40     CONTINUE
   45   CONTINUE
        GO TO 60
   50   INFO = K
   60 CONTINUE
      IPVT(N) = N
      END
      SUBROUTINE DGESL(A, LDA, N, IPVT, B)
      INTEGER LDA, N, IPVT(*), K, KB, L, I
      DOUBLE PRECISION A(LDA,*), B(*), T
      DO 20 K = 1, N-1                     != carries B
        L = IPVT(K)
        T = B(L)
        IF (L .NE. K) THEN
          B(L) = B(K)
          B(K) = T
        END IF
        DO 10 I = K+1, N                   != parallel
   10   B(I) = B(I) + T*A(I,K)
   20 CONTINUE
      DO 40 KB = 1, N                      != carries B
        K = N + 1 - KB
        B(K) = B(K)/A(K,K)
        T = -B(K)
        DO 30 I = 1, K-1                   != parallel
   30   B(I) = B(I) + T*A(I,K)
   40 CONTINUE
      END
