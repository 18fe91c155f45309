      PROGRAM MEANS
C     THE MEAN AND THE GREATEST OF N NUMBERS
      READ *,N
      M=0
      L=0
      DO 10 I=1,N
      READ *,K
      M=M+K
   10 L=MAX(L,K)
      PRINT *,'MEAN',M/N,'GREATEST',L
      END
