C     CALLS WITH COMMON BLOCKS THAT UNITS NAME OTHERWISE.
      PROGRAM TABLES
      COMMON /TABLE/ X(100), Y(100), SCALE
      COMMON /WORK/ T(10)
      REAL A(20,30), W(50)
      SCALE = 0.25
      T(1) = 0.0
      DO 10 I = 1, 100                     != parallel
        CALL FILL(I)
   10 CONTINUE
      DO 20 I = 1, 100                     != carries T, X, Y
        CALL MIDDLE(I)
   20 CONTINUE
      DO 30 I = 1, 100                     != parallel
   30 Y(I) = Y(I) + POLY(X(I), 3)
      DO 40 I = 2, 100                     != carries X
        CALL NEXT(X, I)
   40 CONTINUE
      DO 50 J = 1, 30                      != parallel
        CALL COLUMN(A, 20, J)
   50 CONTINUE
      DO 60 I = 1, 50                      != parallel
        W(I) = 0.0
        CALL ADD(W(I), X(I), 2)
   60 CONTINUE
      DO 70 I = 1, 49                      != carries W
        CALL ADD(W(I), W(I+1), 1)
   70 CONTINUE
      DO 80 I = 1, 50                      != refused call
        CALL TALLY(W(I))
   80 CONTINUE
      DO 90 I = 1, 50                      != refused call
        CALL TELL(I, W(I))
   90 CONTINUE
      S = 0.0
      DO 95 J = 1, 30                      != parallel
        DO 95 I = 1, 20                    != parallel
   95 S = S + A(I,J)
      PRINT '(4F14.5)', S, W(1), X(100), Y(7)
      END
      SUBROUTINE FILL(J)
      COMMON /TABLE/ A(100), B(100), S
      A(J) = S*J
      B(J) = 1.0
      END
      SUBROUTINE MIDDLE(J)
      COMMON /TABLE/ A(200), S
      COMMON /WORK/ P(4), Q(6)
      P(1) = A(J)
      Q(1) = A(201-J)
      A(J+100) = 0.5*(P(1) + Q(1))
      END
      REAL FUNCTION POLY(Z, N)
      POLY = 1.0
      DO 10 K = 1, N                       != carries POLY
   10 POLY = POLY*Z/100.0 + K
      END
      SUBROUTINE NEXT(Z, J)
      REAL Z(*)
      Z(J) = Z(J) + 0.5*Z(J-1)
      END
      SUBROUTINE COLUMN(A, LDA, J)
      REAL A(LDA,*)
      DO 10 I = 1, LDA                     != parallel
   10 A(I,J) = I - J
      END
      SUBROUTINE ADD(U, V, N)
      DO 10 K = 1, N                       != parallel
   10 U = U + V
      END
      SUBROUTINE TALLY(U)
      SAVE NUMBER
      DATA NUMBER /0/
      NUMBER = NUMBER + 1
      U = U + NUMBER
      END
      SUBROUTINE TELL(I, U)
      IF (U .LT. -1.0) PRINT *, I, U
      END
