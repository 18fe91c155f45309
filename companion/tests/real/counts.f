C     HISTOGRAMS: ONE FOR ALL, ONE FOR EACH PART, CUMULATED, EQUALIZED,
C     AND BINS THAT ARE SEARCHED FOR.
      PROGRAM COUNTS
      INTEGER N, NB
      PARAMETER (N = 500, NB = 16)
      INTEGER H(NB), P(NB,4), CUM(0:NB), MAP(NB), IMG(N), OUT(N)
      INTEGER I, J, K, L, LOW, HIGH, MID, TOTAL
      REAL EDGE(0:NB), X(N)
      DO 10 I = 1, N                       != parallel
        X(I) = MOD(I*I,97)/97.0
        IMG(I) = 1 + MOD(I*I,NB)
   10 CONTINUE
      DO 20 J = 0, NB                      != parallel
   20 EDGE(J) = REAL(J)/NB
      DO 30 J = 1, NB                      != parallel
   30 H(J) = 0
      DO 40 I = 1, N                       != carries H
        K = IMG(I)
        H(K) = H(K) + 1
   40 CONTINUE
C     A COLUMN FOR EACH PART.
      DO 70 L = 1, 4                       != parallel
        DO 50 J = 1, NB                    != parallel
   50   P(J,L) = 0
        DO 60 I = L, N, 4                  != carries P
          P(IMG(I),L) = P(IMG(I),L) + 1
   60   CONTINUE
   70 CONTINUE
      DO 90 J = 1, NB                      != parallel
        K = 0
        DO 80 L = 1, 4                     != parallel
   80   K = K + P(J,L)
        H(J) = H(J) - K
   90 CONTINUE
      CUM(0) = 0
      DO 100 J = 1, NB                     != carries CUM
  100 CUM(J) = CUM(J-1) + P(J,1)
      DO 110 J = 1, NB                     != parallel
  110 MAP(J) = (CUM(J)*(NB-1))/CUM(NB) + 1
      DO 120 I = 1, N                      != parallel
  120 OUT(I) = MAP(IMG(I))
C     A JUMP BACK, AND THE SAME WITH A NUMBER OF STEPS.
      DO 150 I = 1, N                      != refused goto
        LOW = 0
        HIGH = NB
  130   IF (HIGH-LOW .LE. 1) GO TO 140
        MID = (LOW + HIGH)/2
        IF (EDGE(MID) .LE. X(I)) THEN
          LOW = MID
        ELSE
          HIGH = MID
        END IF
        GO TO 130
  140   OUT(I) = OUT(I) - LOW
  150 CONTINUE
      DO 170 I = 1, N                      != parallel
        LOW = 0
        HIGH = NB
        DO 160 K = 1, 4                    != carries HIGH, LOW
          MID = (LOW + HIGH)/2
          IF (EDGE(MID) .LE. X(I)) THEN
            LOW = MID
          ELSE
            HIGH = MID
          END IF
  160   CONTINUE
        OUT(I) = OUT(I) + 2*LOW
  170 CONTINUE
      TOTAL = 0
      DO 180 I = 1, N                      != parallel
        IF (OUT(I) .GT. NB) TOTAL = TOTAL + 1
  180 CONTINUE
      PRINT *, H, CUM, TOTAL, OUT(7), MAP
      END
