      PROGRAM ARRAYS
C     OLD VALUES ALONE ARE READ; A SECOND ARRAY KEEPS THEM APART.
      INTEGER A(5), B(5)
      SAVE K
      DO 10 I = 1, 5
   10 A(I) = I
      DO 20 I = 1, 4
   20 A(I) = A(I+1)+1
      DO 30 I = 1, 4
   30 B(I) = A(I)
      K = B(4)
      END
