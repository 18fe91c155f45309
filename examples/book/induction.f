      PROGRAM INDUCT
C     K GROWS BY TWO IN EACH ITERATION.
      INTEGER A(10)
      SAVE A
      DO 10 I = 1, 10
   10 A(I) = 0
      K = 0
      DO 20 I = 1, 5
      K = K+2
   20 A(K) = A(K)+I
      END
