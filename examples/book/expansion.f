      PROGRAM EXPAND
C     TWO ROWS CHANGE PLACES; THE LAST VALUE OF K IS WANTED BEHIND.
      INTEGER A(4), B(4)
      SAVE A, B, K
      DO 10 I = 1, 4
      A(I) = I
   10 B(I) = 10*I
      DO 20 I = 1, 4
      K = A(I)
      A(I) = B(I)
   20 B(I) = K
      END
