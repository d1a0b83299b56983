      WRITE (6,10) 8,(I,I=3,1),I,(1/L,J=1,5,-1),J,((K,K=1,9),M=1,0),K,M
   10 FORMAT (9I3)
      END
