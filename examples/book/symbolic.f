      PROGRAM SYMBOL
C     N IS READ. IT STANDS ON BOTH SIDES IN THE FIRST LOOP, AND ON ONE
C     IN THE SECOND.
      INTEGER A(20), B(20)
      SAVE K, L
      READ *, N
      DO 10 I = 1, 20
      A(I) = I
   10 B(I) = I
      DO 20 I = 1, 4
   20 A(I+N) = A(I+N-1)+1
      DO 30 I = 1, 4
   30 B(I+N) = B(I)
      K = A(N+4)
      L = B(N+4)
      END
