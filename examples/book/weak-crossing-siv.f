      PROGRAM CROSS
C     EACH ELEMENT BY ITS MIRROR IMAGE: THE MIRROR STANDS AT 4 1/2.
      INTEGER A(8)
      SAVE A
      DO 10 I = 1, 8
   10 A(I) = I
      DO 20 I = 1, 8
   20 A(I) = A(9-I)+1
      END
