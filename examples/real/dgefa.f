      SUBROUTINE DGEFA(A, LDA, N, IPVT, INFO)
C     LU FACTORS OF A MATRIX BY GAUSS, WITH PARTIAL PIVOTING. THE CALLS OF
C     LINPACK'S ROUTINE ARE WRITTEN OUT.
      INTEGER LDA, N, IPVT(N), INFO
      DOUBLE PRECISION A(LDA,N), T, BIG
      INTEGER I, J, K, L
      INFO = 0
      DO 60 K = 1, N-1
        L = K
        BIG = ABS(A(K,K))
        DO 10 I = K+1, N
          IF (ABS(A(I,K)) .GT. BIG) THEN
            BIG = ABS(A(I,K))
            L = I
          END IF
   10   CONTINUE
        IPVT(K) = L
        IF (A(L,K) .EQ. 0.0D0) GO TO 50
        T = A(L,K)
        A(L,K) = A(K,K)
        A(K,K) = T
        DO 20 I = K+1, N
          A(I,K) = -A(I,K)/A(K,K)
   20   CONTINUE
        DO 40 J = K+1, N
          T = A(L,J)
          A(L,J) = A(K,J)
          A(K,J) = T
          DO 30 I = K+1, N
            A(I,J) = A(I,J) + T*A(I,K)
   30     CONTINUE
   40   CONTINUE
        GO TO 60
   50   INFO = K
   60 CONTINUE
      IPVT(N) = N
      IF (A(N,N) .EQ. 0.0D0) INFO = N
      END
