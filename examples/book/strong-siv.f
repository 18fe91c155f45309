      PROGRAM STRONG
C     THREE AND NINE ELEMENTS BACK, AND EVEN AGAINST ODD ONES.
      INTEGER A(12), B(18), C(19)
      SAVE K, L, M
      DO 10 I = 1, 12
   10 A(I) = I
      DO 20 I = 1, 18
   20 B(I) = I
      DO 30 I = 1, 19
   30 C(I) = I
      DO 40 I = 1, 9
   40 A(I+3) = A(I)+1
      DO 50 I = 1, 9
   50 B(I+9) = B(I)
      DO 60 I = 1, 9
   60 C(2*I) = C(2*I+1)
      K = A(12)
      L = B(18)
      M = C(18)
      END
