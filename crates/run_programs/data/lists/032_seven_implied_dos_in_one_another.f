      INTEGER A(2,2,2,2,2,2,2)
      DO 10 I=1,2
      DO 10 J=1,2
   10 A(I,J,I,J,I,J,I)=10*I+J
      PRINT 20,(((((((A(I,J,K,L,M,N,NN),I=1,2),J=1,2),K=1,2),L=1,2),
     1 M=1,2),N=1,2),NN=1,2)
   20 FORMAT (16I3)
      END
