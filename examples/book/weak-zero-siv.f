      PROGRAM ZERO
C     ALL READ THE LAST ELEMENT; THE LAST ITERATION WRITES IT.
      INTEGER A(8)
      SAVE A
      DO 10 I = 1, 8
   10 A(I) = I
      DO 20 I = 1, 8
   20 A(I) = 2*A(8)
      END
