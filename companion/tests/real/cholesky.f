C     CHOLESKY'S FACTORS, COLUMN BY COLUMN AND WITH A STATEMENT FUNCTION.
C     THAT K ISN'T J IS NOT SEEN FROM DO 30 ALONE.
      PROGRAM CHOLES
      INTEGER N, I, J, K
      PARAMETER (N = 40)
      REAL*8 A(N,N), S, CELL
      CELL(I,J) = 1.0D0/(I + J) + MAX(0, 1 - ABS(I - J))*3
      DO 20 J = 1, N                       != parallel
        DO 10 I = 1, N                     != parallel
   10   A(I,J) = CELL(I,J)
   20 CONTINUE
      DO 70 J = 1, N                       != carries A
        DO 40 K = 1, J-1                   != carries A
          DO 30 I = J, N                   != carries A
   30     A(I,J) = A(I,J) - A(I,K)*A(J,K)
   40   CONTINUE
        A(J,J) = SQRT(A(J,J))
        DO 60 I = J+1, N                   != parallel
   60   A(I,J) = A(I,J)/A(J,J)
   70 CONTINUE
      S = 0
      DO 90 J = 1, N                       != parallel
        DO 80 I = J, N                     != parallel
          S = S + A(I,J)**2
   80   CONTINUE
   90 CONTINUE
      WRITE (6, 100) S
  100 FORMAT (F20.10)
      END
