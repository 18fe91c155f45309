      PROGRAM WAVE
C     EACH ELEMENT FROM THE ONE ABOVE IT AND THE ONE TO ITS LEFT
      PARAMETER (N=1000)
      INTEGER A(N,N)
      DO J = 1, N
        DO I = 1, N
          A(I,J) = MOD(I*J,3)+1
        END DO
      END DO
      DO K = 1, 20
        DO J = 2, N
          DO I = 2, N
            A(I,J) = MOD(A(I,J)+MIN(A(I-1,J),A(I,J-1)),1000)
          END DO
        END DO
      END DO
      PRINT *, A(N,N)
      END
