      PROGRAM ZIV
C     COLUMN 1 IS WRITTEN, COLUMN 2 READ.
      INTEGER A(4,2)
      SAVE A
      DO 10 I = 1, 4
   10 A(I,2) = I
      DO 20 I = 1, 4
   20 A(5-I,1) = A(I,2)
      END
