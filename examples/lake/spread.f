C     The dye spreads: half a step along the rows, half a step along
C     the columns, each of them implicit. From an older program.
C
      SUBROUTINE SPRDR(NX, NY, DYE, H, C)
C     Along the rows. C is the number of cells that dye goes in the
C     time, squared.
      INTEGER NX, NY
      DOUBLE PRECISION DYE(0:NX+1,0:NY+1), H(0:NX+1,0:NY+1), C
      INTEGER J
      DO 10 J = 1, NY
        CALL LINE(NX, DYE(0,J), H(0,J), C)
   10 CONTINUE
      END
C
      SUBROUTINE SPRDC(NX, NY, DYE, H, C)
C     Along the columns. All of them go forward together, row by row.
      INTEGER NX, NY
      DOUBLE PRECISION DYE(0:NX+1,0:NY+1), H(0:NX+1,0:NY+1), C
      INTEGER MAXN
      PARAMETER (MAXN = 256)
      DOUBLE PRECISION G(0:MAXN,MAXN), Q(0:MAXN,MAXN), B, LOW, UP
      INTEGER I, J
      IF (NX .GT. MAXN .OR. NY .GT. MAXN) STOP 2
      DO 10 I = 1, NX
        G(0,I) = 0D0
        Q(0,I) = 0D0
   10 CONTINUE
      DO 30 J = 1, NY
        DO 20 I = 1, NX
          LOW = C*MIN(H(I,J-1), H(I,J))/MAX(H(I,J), 1D-3)
          UP = C*MIN(H(I,J+1), H(I,J))/MAX(H(I,J), 1D-3)
          IF (J .EQ. 1) LOW = 0D0
          IF (J .EQ. NY) UP = 0D0
          B = 1D0 + LOW + UP - LOW*G(J-1,I)
          G(J,I) = UP/B
          Q(J,I) = (DYE(I,J) + LOW*Q(J-1,I))/B
   20   CONTINUE
   30 CONTINUE
      DO 40 I = 1, NX
        DYE(I,NY) = Q(NY,I)
   40 CONTINUE
      DO 60 J = NY-1, 1, -1
        DO 50 I = 1, NX
          DYE(I,J) = Q(J,I) + G(J,I)*DYE(I,J+1)
   50   CONTINUE
   60 CONTINUE
      END
C
      SUBROUTINE LINE(N, X, H, C)
C     One row: the equations are tridiagonal (Thomas).
      INTEGER N
      DOUBLE PRECISION X(0:N+1), H(0:N+1), C
      INTEGER MAXN
      PARAMETER (MAXN = 256)
      DOUBLE PRECISION G(0:MAXN), Q(0:MAXN), B, LOW, UP
      INTEGER I
      G(0) = 0D0
      Q(0) = 0D0
      DO 10 I = 1, N
        LOW = C*MIN(H(I-1), H(I))/MAX(H(I), 1D-3)
        UP = C*MIN(H(I+1), H(I))/MAX(H(I), 1D-3)
        IF (I .EQ. 1) LOW = 0D0
        IF (I .EQ. N) UP = 0D0
        B = 1D0 + LOW + UP - LOW*G(I-1)
        G(I) = UP/B
        Q(I) = (X(I) + LOW*Q(I-1))/B
   10 CONTINUE
      X(N) = Q(N)
      DO 20 I = N-1, 1, -1
        X(I) = Q(I) + G(I)*X(I+1)
   20 CONTINUE
      END
