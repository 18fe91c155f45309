C     OLD FIXED FORM: TABS, SHARED LABELS, JUMPS, STORAGE, NUMBERS AFTER COLUMN 72
      SUBROUTINE LEGACY(A, LDA, N, IPVT, INFO, *)                       LEG00010
      INTEGER LDA, N, IPVT(1), INFO                                     LEG00020
      REAL A(LDA,*)                                                     LEG00030
      REAL*8 D, E(20)
      DOUBLE PRECISION W
      COMPLEX*16 Z
      CHARACTER*8 NAME, TITLE(3)*4
      LOGICAL DONE
      COMMON /WORK/ W(100), K, L(10) // R
      DIMENSION IDX(10)
      EQUIVALENCE (E(1), D), (IDX(3), M)
      EXTERNAL FUN
      INTRINSIC SIN
      PARAMETER (TWO = 2.0, NB = 4*8)
      SAVE NAME, /WORK/
      DATA IDX /10*0/, DONE /.FALSE./, NAME /'IT''S ME'/
      SQ(X) = X*X
 1000 FORMAT (1X, 'I =', I5, 5HDON'T, F8.3)
      INFO = 0
      DO 30 J = 1, N
	DO 20 I = 1, N
	  T = A(I,J)
     1        + SQ(T) +
     2        1.0E-3
C     A COMMENT BETWEEN
      IF (T) 10, 20, 15
   10 A(I,J) = -T
      GO TO 20
   15 A(I,J) = T ** 2 / (1.0 + SIN(T)) + FUN(T)
   20 CONTINUE
   30 CONTINUE
      DO 40 I = 1, N
      DO 40 J = 1, N
   40 A(I,J) = A(I,J) + TWO*E(MOD(I,20)+1)
      K = 2
      GO TO (50, 60, 70), K
   50 Z = (1.0,-2.0)*CMPLX(REAL(K),0.0)
   60 IF (DONE .AND. .NOT. (K.EQ.3 .OR. K.GE.5)) RETURN 1
   70 ASSIGN 80 TO LBL
      GO TO LBL, (80, 90)
   80 WRITE (6, 1000) (I, A(I,1), I = 1, N)
      READ (5, *, END = 90, ERR = 90) (IPVT(I), I = 1, N, 2)
   90 TITLE(1)(2:3) = NAME(1:2) // 'X!Y'
      DO 100, I = N, 1, -1
        INDEX = I
        IF (I .GT. 3) THEN
          L(I) = IDX(I) + M
        ELSE IF (I .EQ. 2) THEN
          L(I) = 0
        ELSE
          L(I) = MAX0(I, K)
        END IF
  100 CONTINUE
      DO110I=1,3
  110 DO110I2 = 1.5
      CALL OTHER(A, N, *120)
      STOP
      ENTRY SECOND(A, LDA, N)
  120 CONTINUE
      DO WHILE (K .LT. N)
        K = K + 1; L(1) = K
      ENDDO
      END
      REAL FUNCTION FUN(X)
      FUN = X
      END
      SUBROUTINE OTHER(A, N, *)
      REAL A(N)
      A(1) = 0
      RETURN 1
      END
      BLOCK DATA INIT
      COMMON /WORK/ W(100), K, L(10)
      DOUBLE PRECISION W
      DATA K /1/
      END
      PROGRAM MAIN
      REAL A(5,5)
      INTEGER P(5)
      CALL LEGACY(A, 5, 5, P, INFO, *10)
   10 END
