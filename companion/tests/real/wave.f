C     A WAVE ON A STRING, WITH COMMON BLOCKS, AN OLD DO AND A PLAIN SAVE.
      PROGRAM STRING
      COMMON /FIELD/ U(500), V(500), W(500), N
      COMMON /STEP/ DT, DX
      N = 400
      DT = 0.5
      DX = 1.0
      DO 10 I = 1, N                       != parallel
        U(I) = 0.0
        V(I) = 0.0
        IF (I.GT.100 .AND. I.LT.140) U(I) = 1.0
   10 CONTINUE
      DO 20 K = 1, 100                     != refused call
        CALL LEAP
   20 CONTINUE
      CALL PEAK(BIG, WHERE)
      PRINT '(2F12.6)', BIG, WHERE
      END
      SUBROUTINE LEAP
      SAVE
      COMMON /FIELD/ U(500), V(500), W(500), N
      COMMON /STEP/ DT, DX
      C = (DT/DX)**2
      DO 10 I = 2, N-1                     != parallel
   10 W(I) = 2.0*U(I) - V(I) + C*(U(I+1) - 2.0*U(I) + U(I-1))
      W(1) = 0.0
      W(N) = 0.0
      DO 20 I = 1, N                       != parallel
        V(I) = U(I)
        U(I) = W(I)
   20 CONTINUE
      END
      SUBROUTINE PEAK(BIG, PLACE)
      COMMON /FIELD/ U(500), V(500), W(500), N
      BIG = ABS(U(1))
      PLACE = 1
      DO 10 I = 2, N                       != carries BIG, PLACE
        IF (ABS(U(I)) .GT. BIG) THEN
          BIG = ABS(U(I))
          PLACE = I
        ENDIF
   10 CONTINUE
      DO 20 I = 1, N                       != parallel
   20 BIG = AMAX1(BIG, ABS(V(I)))
      END
