      PROGRAM OUTER
C     A PRODUCT OF MATRICES WHOSE OUTERMOST LOOP ADDS UP.
      INTEGER A(2,2), B(2,2), C(2,2)
      SAVE C
      DO 10 I = 1, 2
      DO 10 J = 1, 2
      A(I,J) = I
      B(I,J) = J
   10 C(I,J) = 0
      DO 20 K = 1, 2
      DO 20 I = 1, 2
      DO 20 J = 1, 2
   20 C(I,J) = C(I,J)+A(I,K)*B(K,J)
      END
