      PROGRAM RENAME
C     K HAS TWO USES THAT HAVE NOTHING TO DO WITH EACH OTHER.
      INTEGER A(4), B(4)
      SAVE A, B
      DO 10 I = 1, 4
      K = I*I
      A(I) = K+1
      K = 10*I
   10 B(I) = K-1
      END
