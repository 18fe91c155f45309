C     VECTORS: THE LOOPS OF THE FIRST LEVEL OF BLAS, FOR STEPS OF 1.
      PROGRAM BLAS1
      INTEGER N, I, IDAMAX
      PARAMETER (N = 500)
      DOUBLE PRECISION X(N), Y(N), DDOT, DASUM
      DO 10 I = 1, N                       != parallel
        X(I) = MOD(7*I, 13) - 5
        Y(I) = MOD(5*I, 11) - 4
   10 CONTINUE
      CALL DAXPY(N, 2.0D0, X, Y)
      CALL DSCAL(N, 0.5D0, X)
      CALL DSWAP(N, X, Y)
      CALL DROT(N, X, Y, 0.6D0, 0.8D0)
      CALL DCOPY(N, X, Y)
      PRINT *, DDOT(N, X, Y), DASUM(N, X), IDAMAX(N, Y)
      END
      SUBROUTINE DAXPY(N, DA, DX, DY)
      DOUBLE PRECISION DX(*), DY(*), DA
      INTEGER N, I, M
      M = MOD(N, 4)
      DO 10 I = 1, M                       != parallel
   10 DY(I) = DY(I) + DA*DX(I)
      DO 20 I = M+1, N, 4                  != parallel
        DY(I) = DY(I) + DA*DX(I)
        DY(I+1) = DY(I+1) + DA*DX(I+1)
        DY(I+2) = DY(I+2) + DA*DX(I+2)
        DY(I+3) = DY(I+3) + DA*DX(I+3)
   20 CONTINUE
      END
      SUBROUTINE DSCAL(N, DA, DX)
      DOUBLE PRECISION DX(*), DA
      DO 10 I = N, 1, -1                   != parallel
   10 DX(I) = DA*DX(I)
      END
      SUBROUTINE DSWAP(N, DX, DY)
      DOUBLE PRECISION DX(N), DY(N), T
      DO 10 I = 1, N                       != parallel
        T = DX(I)
        DX(I) = DY(I)
   10 DY(I) = T
      END
      SUBROUTINE DROT(N, DX, DY, C, S)
      DOUBLE PRECISION DX(N), DY(N), C, S, T
      DO 10 I = 1, N                       != parallel
        T = C*DX(I) + S*DY(I)
        DY(I) = C*DY(I) - S*DX(I)
        DX(I) = T
   10 CONTINUE
      END
      SUBROUTINE DCOPY(N, DX, DY)
      DOUBLE PRECISION DX(*), DY(*)
      IX = 1
      IY = N
      DO 10 I = 1, N                       != parallel
        DY(IY) = DX(IX)
        IX = IX + 1
        IY = IY - 1
   10 CONTINUE
      END
      DOUBLE PRECISION FUNCTION DDOT(N, DX, DY)
      DOUBLE PRECISION DX(*), DY(*), DTEMP
      DTEMP = 0.0D0
      DO 10 I = 1, N                       != parallel
   10 DTEMP = DTEMP + DX(I)*DY(I)
      DDOT = DTEMP
      END
      DOUBLE PRECISION FUNCTION DASUM(N, DX)
      DOUBLE PRECISION DX(*)
      DASUM = 0.0D0
      DO 10 I = 1, N                       != parallel
   10 DASUM = DASUM + DABS(DX(I))
      END
      INTEGER FUNCTION IDAMAX(N, DX)
      DOUBLE PRECISION DX(*), DMAX
      IDAMAX = 1
      DMAX = DABS(DX(1))
      DO 10 I = 2, N                       != carries DMAX, IDAMAX
        IF (DABS(DX(I)) .LE. DMAX) GO TO 10
        IDAMAX = I
        DMAX = DABS(DX(I))
   10 CONTINUE
      END
