c     The product C of two matrices A and B, whose orders and elements
c     are read, A column by column and then B.
      program prodct
      parameter (maxn=50)
      integer a(maxn,maxn), b(maxn,maxn), c(maxn,maxn)
      save c
      read *, l, m, n
      if (l.lt.1 .or. l.gt.maxn .or. m.lt.1 .or. m.gt.maxn .or.
     +    n.lt.1 .or. n.gt.maxn) then
         print *, 'Each order must be 1 to', maxn
         stop
      end if
      do 10 k = 1, m
      do 10 i = 1, l
   10 read *, a(i,k)
      do 20 j = 1, n
      do 20 k = 1, m
   20 read *, b(k,j)
c     No column of the product needs another.
      parallel do 40 j = 1, n
      private isum
      do 40 i = 1, l
         isum = 0
         do 30 k = 1, m
   30    isum = isum + a(i,k) * b(k,j)
   40 c(i,j) = isum
      do 50 i = 1, l
      do 50 j = 1, n
   50 print *, c(i,j)
      end
