C     SOME OF THE LIVERMORE LOOPS.
      PROGRAM LIVER
      INTEGER N
      PARAMETER (N = 100)
      COMMON /SPACE/ X(1101), Y(1101), Z(1101), U(1101), V(1101),
     &               PX(25,101), CX(25,101)
      COMMON /PLANE/ ZA(101,7), ZB(101,7), ZM(101,7), ZP(101,7),
     &               ZQ(101,7), ZR(101,7), ZU(101,7), ZV(101,7)
      REAL Q, R, T, AR, BR, CR, S
      INTEGER I, J, K, M, L
      DO 1 K = 1, 1101                     != parallel
        X(K) = 0.001*MOD(3*K, 101)
        Y(K) = 0.002*MOD(5*K, 103)
        Z(K) = 0.003*MOD(7*K, 107)
        U(K) = 0.004*MOD(9*K, 109)
    1 V(K) = 0.001*MOD(11*K, 113)
      DO 3 J = 1, 101                      != parallel
        DO 2 I = 1, 25                     != parallel
          PX(I,J) = 0.01*(I + J)
          CX(I,J) = 0.02*(I - J)
    2   CONTINUE
        DO 3 I = 1, 7                      != parallel
          ZA(J,I) = 0.01*(I + 2*J)
          ZB(J,I) = 0.02*(I + J)
          ZM(J,I) = 1.0 + 0.01*I
          ZP(J,I) = 0.03*J
          ZQ(J,I) = 0.02*J
          ZR(J,I) = 0.01*J
          ZU(J,I) = 0.0
          ZV(J,I) = 0.0
    3 CONTINUE
      Q = 0.5
      R = 0.25
      T = 0.125
C     1: HYDRODYNAMICS
      DO 10 K = 1, N                       != parallel
   10 X(K) = Q + Y(K)*(R*Z(K+10) + T*Z(K+11))
C     3: INNER PRODUCT
      Q = 0.0
      DO 30 K = 1, N                       != parallel
   30 Q = Q + Z(K)*X(K)
C     5: TRIDIAGONAL ELIMINATION
      DO 50 I = 2, N                       != carries X
   50 X(I) = Z(I)*(Y(I) - X(I-1))
C     6: GENERAL LINEAR RECURRENCE
      DO 60 I = 2, 20                      != carries U
        DO 60 K = 1, I-1                   != carries U
   60 U(I) = U(I) + CX(K,I)*U(I-K)
C     7: EQUATION OF STATE
      DO 70 K = 1, N                       != parallel
        X(K) = U(K) + R*(Z(K) + R*Y(K)) +
     &         T*(U(K+3) + R*(U(K+2) + R*U(K+1)) +
     &            T*(U(K+6) + R*(U(K+5) + R*U(K+4))))
   70 CONTINUE
C     9: INTEGRATION
      DO 90 I = 1, N                       != parallel
        PX(1,I) = T*PX(13,I) + R*PX(12,I) + Q*PX(11,I) + PX(3,I)
   90 CONTINUE
C     10: DIFFERENCES
      DO 100 I = 1, N                      != parallel
        AR = CX(5,I)
        BR = AR - PX(5,I)
        PX(5,I) = AR
        CR = BR - PX(6,I)
        PX(6,I) = BR
        AR = CR - PX(7,I)
        PX(7,I) = CR
        PX(8,I) = AR
  100 CONTINUE
C     11: FIRST SUM
      DO 110 K = 2, N                      != carries X
  110 X(K) = X(K-1) + Y(K)
C     12: FIRST DIFFERENCE
      DO 120 K = 1, N                      != parallel
  120 X(K) = Y(K+1) - Y(K)
C     18: HYDRODYNAMICS IN TWO DIMENSIONS
      S = 0.01
      DO 180 K = 2, 6                      != parallel
        DO 180 J = 2, N                    != parallel
          ZA(J,K) = (ZP(J-1,K+1) + ZQ(J-1,K+1) - ZP(J-1,K) - ZQ(J-1,K))
     &            * (ZR(J,K) + ZR(J-1,K))/(ZM(J-1,K) + ZM(J-1,K+1))
          ZB(J,K) = (ZP(J-1,K) + ZQ(J-1,K) - ZP(J,K) - ZQ(J,K))
     &            * (ZR(J,K) + ZR(J,K-1))/(ZM(J,K) + ZM(J-1,K))
  180 CONTINUE
      DO 182 K = 2, 6                      != parallel
        DO 182 J = 2, N                    != parallel
          ZU(J,K) = ZU(J,K) + S*(ZA(J,K)*(ZP(J,K) - ZP(J+1,K))
     &              - ZA(J-1,K)*(ZP(J,K) - ZP(J-1,K)))
          ZV(J,K) = ZV(J,K) + S*(ZA(J,K)*(ZR(J,K) - ZR(J+1,K)))
  182 CONTINUE
C     21: MATRIX PRODUCT
      DO 210 K = 1, 25                     != carries PX
        DO 210 I = 1, 25                   != parallel
          DO 210 J = 1, N                  != parallel
  210 PX(I,J) = PX(I,J) + 0.001*U(I+K)*CX(K,J)
C     24: PLACE OF THE LEAST ELEMENT
      M = 1
      DO 240 K = 2, N                      != carries M
        IF (X(K) .LT. X(M)) M = K
  240 CONTINUE
      L = 0
      DO 250 K = 1, N                      != parallel
        IF (X(K) .LT. 0.0) L = L + 1
  250 CONTINUE
      S = 0.0
      DO 260 J = 1, N                      != parallel
        DO 260 I = 1, 25                   != parallel
  260 S = S + PX(I,J)
      WRITE (*, '(2I6, 3F14.4)') M, L, S, X(N), ZU(50,3)
      END
