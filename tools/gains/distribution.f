      PROGRAM DISTRI
C     A RECURRENCE OF ONE STATEMENT BETWEEN TWO THAT CARRY NOTHING
      PARAMETER (N=1000000)
      INTEGER A(N), B(N), C(N)
      DO I = 1, N
        A(I) = I
        C(I) = 0
      END DO
      DO K = 1, 20
        DO I = 2, N
          B(I) = MOD(A(I)*7+K,1009)
          C(I) = MOD(C(I-1)+B(I),1000)
          A(I) = MOD(C(I)*B(I),1013)
        END DO
      END DO
      PRINT *, A(N), C(N)
      END
