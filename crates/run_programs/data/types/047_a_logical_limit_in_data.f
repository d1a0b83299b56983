      INTEGER A(3)
      DATA (A(I),I=1,.TRUE.)/3*1/
      END
