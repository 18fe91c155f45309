C     SORTING: BUBBLES, INSERTION, AND EXCHANGES OF ODD AND EVEN PAIRS.
      PROGRAM SORTER
      INTEGER N, I, J, K
      PARAMETER (N = 100)
      INTEGER A(N), B(N), C(N), T
      DO 10 I = 1, N                       != parallel
        A(I) = MOD(I*I*7 + 13*I, 101)
        B(I) = A(I)
   10 C(I) = A(I)
      DO 30 I = N-1, 1, -1                 != carries A
        DO 20 J = 1, I                     != carries A
          IF (A(J) .GT. A(J+1)) THEN
            T = A(J)
            A(J) = A(J+1)
            A(J+1) = T
          END IF
   20   CONTINUE
   30 CONTINUE
      DO 60 I = 2, N                       != carries B
        T = B(I)
        DO 40 J = I-1, 1, -1               != refused exit
          IF (B(J) .LE. T) GO TO 50
          B(J+1) = B(J)
   40   CONTINUE
        J = 0
   50   B(J+1) = T
   60 CONTINUE
      DO 80 K = 1, N                       != carries C
        DO 70 I = 1 + MOD(K,2), N-1, 2     != parallel
          IF (C(I) .LE. C(I+1)) GO TO 70
          T = C(I)
          C(I) = C(I+1)
          C(I+1) = T
   70   CONTINUE
   80 CONTINUE
      K = 0
      DO 90 I = 1, N                       != parallel
   90 IF (A(I) .NE. B(I) .OR. A(I) .NE. C(I)) K = K + 1
      PRINT *, K, A(1), A(N)
      END
