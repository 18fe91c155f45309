      PROGRAM ORDERS
C     THE PRODUCT C OF A AND B, WITH ITS LOOPS IN SEVERAL ORDERS.
      PARAMETER (N=2)
      INTEGER A(N,N),B(N,N),C(N,N)
      SAVE C
      DO 10 I=1,N
      DO 10 J=1,N
      A(I,J)=I+J
      B(I,J)=I-J
   10 C(I,J)=0
      DO 20 I=1,N
      DO 20 J=1,N
      DO 20 K=1,N
   20 C(I,J)=C(I,J)+A(I,K)*B(K,J)
      END
