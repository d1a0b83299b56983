      N(MORE(1))=1
      END
