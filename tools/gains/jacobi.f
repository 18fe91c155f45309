      PROGRAM JACOBI
C     A PLATE WITH A HOT EDGE: IN A SWEEP EACH POINT GETS THE MEAN OF
C     THE FOUR POINTS BESIDE IT, AND LCHANG ADDS UP THE CHANGES.
      PARAMETER (N=1000, NSWEEP=400)
      INTEGER U(0:N+1,0:N+1), V(N,N), T
      DO J = 0, N+1
        DO I = 0, N+1
          U(I,J) = 0
          IF (I.EQ.0) U(I,J) = 1000000
        END DO
      END DO
      DO K = 1, NSWEEP
        DO J = 1, N
          DO I = 1, N
            T = U(I-1,J)+U(I+1,J)+U(I,J-1)+U(I,J+1)
            V(I,J) = T/4
          END DO
        END DO
        LCHANG = 0
        DO J = 1, N
          DO I = 1, N
            LCHANG = LCHANG+ABS(V(I,J)-U(I,J))/1000
            U(I,J) = V(I,J)
          END DO
        END DO
      END DO
      PRINT *, LCHANG, U(10,500)
      END
