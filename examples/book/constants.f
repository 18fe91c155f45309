      PROGRAM CONST
C     N IS 5 AND STAYS 5; AS A CONSTANT IT IS KNOWN TO BE.
      INTEGER A(10)
      SAVE A
      N = 5
      DO 10 I = 1, 10
   10 A(I) = I
      DO 20 I = 1, N
   20 A(I+N) = A(I)
      END
