      PROGRAM FUSION
C     TWO LOOPS WITH THE SAME HEADER
      PARAMETER (N=1000000)
      INTEGER A(N), B(N), C(N)
      DO I = 1, N
        A(I) = I
        B(I) = I
      END DO
      DO K = 1, 100
        DO I = 1, N
          B(I) = A(I)+B(I)
        END DO
        DO I = 1, N
          C(I) = A(I)-B(I)+K
        END DO
      END DO
      PRINT *, B(N), C(N)
      END
