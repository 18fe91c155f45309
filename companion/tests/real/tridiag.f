C     MANY TRIDIAGONAL SYSTEMS AT ONCE, BY THOMAS; AND ONE BY CYCLIC
C     REDUCTION.
      PROGRAM TRIDI
      INTEGER N, M, I, J
      PARAMETER (N = 63, M = 20)
      REAL A(N), B(N), C(N), D(N,M), W(N,M), X(N), S
      DO 10 I = 1, N                       != parallel
        A(I) = -1.0
        B(I) = 4.0 + 0.1*MOD(I,3)
        C(I) = -1.0
        DO 10 J = 1, M                     != parallel
   10 D(I,J) = MOD(I + J, 7)
      DO 40 J = 1, M                       != parallel
        W(1,J) = C(1)/B(1)
        D(1,J) = D(1,J)/B(1)
        DO 20 I = 2, N                     != carries D, W
          W(I,J) = C(I)/(B(I) - A(I)*W(I-1,J))
          D(I,J) = (D(I,J) - A(I)*D(I-1,J))/(B(I) - A(I)*W(I-1,J))
   20   CONTINUE
        DO 30 I = N-1, 1, -1               != carries D
   30   D(I,J) = D(I,J) - W(I,J)*D(I+1,J)
   40 CONTINUE
      CALL CYCLIC(N, X)
      S = 0.0
      DO 50 J = 1, M                       != parallel
        DO 50 I = 1, N                     != parallel
   50 S = S + D(I,J)
      PRINT '(2F14.5)', S, X(32)
      END
      SUBROUTINE CYCLIC(N, X)
      REAL X(N)
      INTEGER N, I, K
      DO 10 I = 1, N                       != parallel
   10 X(I) = MOD(3*I, 8)
      K = 1
   20 IF (2*K .GT. N) RETURN
        DO 30 I = 2*K, N-K, 2*K            != carries X
   30   X(I) = X(I) - 0.25*(X(I-K) + X(I+K))
        K = 2*K
      GO TO 20
      END
