      SUBROUTINE WORK(N, X)
      INTEGER I, N
      REAL X(N), A(100), B(100), S
      EQUIVALENCE (A(1), B(50))
      S = 0.0
      DO 10 I = 1, MIN(N, 50)
   10 A(I) = B(I) + X(I)
      DO 20 I = 1, N
        CALL OUTER(X(I), S)
   20 CONTINUE
      DO 30 I = 1, N
        IF (X(I) .LT. 0.0) GO TO 30
        S = S + SQRT(X(I))
   30 CONTINUE
      X(1) = S
      END
