      PROGRAM KINDS
C     EACH ITERATION WRITES ITS ELEMENT, READS IT, AND WRITES IT AGAIN.
      INTEGER A(5), B(5)
      SAVE A, B
      DO 10 I = 1, 5
      A(I) = I
      B(I) = A(I)
   10 A(I) = 2*I
      END
