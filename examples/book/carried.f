      PROGRAM CARRY
C     B TAKES A VALUE ON WITHIN AN ITERATION, A TAKES ONE TO THE NEXT.
      INTEGER A(5), B(4)
      SAVE A, B
      A(1) = 1
      DO 10 I = 1, 4
      B(I) = A(I)+1
   10 A(I+1) = 2*B(I)
      END
